// Keeps a study's page as its last line has it. Upon an event the page is fetched anew, but for a first one that tells the line which the page is of already.
// What differs is put in its place: what is open stays open, what has the focus keeps it, and the sentence is read out where it changed.
"use strict";

// A page that found no place among those kept up to date tries again after so long.
const AGAIN_MILLISECONDS = 60000;
const events = document.body.dataset.events;
let fetching = false;
let again = false;

function replace(now, then) {
  if (now.outerHTML === then.outerHTML) {
    return;
  }
  if (now.getAttribute("role") === "status") {
    now.className = then.className;
    now.textContent = then.textContent;
    return;
  }
  for (const details of now.querySelectorAll("details[open][id]")) {
    const same = then.querySelector(`[id="${details.id}"]`);
    if (same) {
      same.open = true;
    }
  }
  now.replaceWith(then);
}

// Where the focus was, within a page that was made anew.
function sameAs(focused) {
  const link = focused.getAttribute("href");
  const details = focused.closest("details[id]");
  if (focused.id) {
    return document.getElementById(focused.id);
  }
  if (link) {
    return [...document.links].find((other) => other.getAttribute("href") === link);
  }
  return details && document.querySelector(`[id="${details.id}"] > summary`);
}

function take(text) {
  const page = new DOMParser().parseFromString(text, "text/html");
  const [main, then] = [document.getElementById("main"), page.getElementById("main")];
  const focused = document.activeElement;
  const parts = [...then.children];
  const wanted = new Set(parts.map((part) => part.id));
  [...main.children].filter((part) => !wanted.has(part.id)).forEach((part) => part.remove());
  let place = main.firstElementChild;
  for (const part of parts) {
    if (place && place.id === part.id) {
      const now = place;
      place = place.nextElementSibling;
      replace(now, part);
    } else {
      main.insertBefore(part, place);
    }
  }
  main.dataset.line = then.dataset.line;
  document.title = page.title;
  if (!focused.isConnected) {
    const same = sameAs(focused);
    if (same) {
      same.focus({ preventScroll: true });
    }
  }
}

async function fetchAnew() {
  if (fetching) {
    again = true;
    return;
  }
  fetching = true;
  try {
    const answer = await fetch(location.href, { cache: "no-store" });
    const text = await answer.text();
    take(text);
  } catch (error) {
    // The page's server is away; the events begin anew when it is back.
  } finally {
    fetching = false;
    if (again) {
      again = false;
      fetchAnew();
    }
  }
}

function watch() {
  const source = new EventSource(events);
  let first = true;
  source.onopen = () => {
    first = true;
  };
  source.onmessage = (event) => {
    if (!first || event.data !== document.getElementById("main").dataset.line) {
      fetchAnew();
    }
    first = false;
  };
  source.addEventListener("removed", () => {
    source.close();
    fetchAnew();
  });
  source.onerror = () => {
    if (source.readyState === EventSource.CLOSED) {
      setTimeout(watch, AGAIN_MILLISECONDS);
    }
  };
}

if (events) {
  watch();
}
