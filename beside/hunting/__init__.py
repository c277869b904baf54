"""What `hunt.py` is made of: event files by seed, a daemon that is kept between them, and differences made small (docs/HUNT.md)."""
