"""A page for planners: what a study has come to, by what is stored of it. It reads, and sends nothing."""
