"""What `site check` says of a site beside its first fault: the faults of further files, and what is read otherwise than by Jekyll."""
