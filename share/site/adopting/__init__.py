"""What `site adopt` does to a Jekyll site. The module of the word, `adopt`, says in which order."""
