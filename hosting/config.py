"""The configuration of a data folder, DIR/host.ini. Without the file, and for what it does not say, the defaults here hold."""

import configparser
import ipaddress
from dataclasses import asdict, dataclass
from pathlib import Path

FILE = "host.ini"
SECTION = "host"


class ConfigError(Exception):
    """A configuration that cannot be used."""


@dataclass(frozen=True)
class Config:
    """Limits are whole numbers of 1 or more; page_limit 0 is no limit; an empty path is none. Paths are relative to the data folder."""

    connections_per_study: int = 64
    connections: int = 512
    idle_seconds: int = 3600
    outstanding_lines: int = 16
    certificate: str = ""
    key: str = ""
    client_ca: str = ""
    page_limit: int = 0

    @property
    def tls(self) -> bool:
        return self.certificate != ""


def read(data: Path) -> Config:
    """The configuration of a data folder."""
    parser = configparser.ConfigParser(interpolation=None)
    try:
        with open(data / FILE, encoding="utf-8") as file:
            parser.read_file(file)
    except FileNotFoundError:
        return Config()
    except (OSError, ValueError, configparser.Error) as error:
        raise ConfigError(f"{data / FILE}: {' '.join(str(error).split())}") from error
    try:
        return _checked(data, parser)
    except ConfigError as error:
        raise ConfigError(f"{data / FILE}: {error}") from error


def _checked(data: Path, parser: configparser.ConfigParser) -> Config:
    """The configuration that a parsed file gives, where every name and value of it can be used."""
    if parser.sections() != [SECTION] or parser.defaults():
        raise ConfigError(f"there must be one section, [{SECTION}]")
    defaults = asdict(Config())
    values: dict[str, int | str] = {}
    for name, value in parser[SECTION].items():
        if name not in defaults:
            raise ConfigError(f"there is no setting {name}")
        values[name] = _number(name, value) if isinstance(defaults[name], int) else _path(data, name, value)
    config = Config(**values)
    if bool(config.certificate) != bool(config.key) or (config.client_ca and not config.certificate):
        raise ConfigError("TLS needs both certificate and key, and client_ca needs TLS")
    return config


def _number(name: str, value: str) -> int:
    least = 0 if name == "page_limit" else 1
    if not (value.isascii() and value.isdecimal()) or int(value) < least:
        raise ConfigError(f"{name} is not a whole number of {least} or more: {value}")
    return int(value)


def _path(data: Path, name: str, value: str) -> str:
    path = data / value
    if value == "":
        return ""
    if not path.is_file():
        raise ConfigError(f"{name}: there is no file {path}")
    return str(path.absolute())


def may_listen(bind: str, config: Config) -> bool:
    """Whether the host listens on this address: loopback always, others by TLS only."""
    try:
        return config.tls or ipaddress.ip_address(bind).is_loopback
    except ValueError:
        return False
