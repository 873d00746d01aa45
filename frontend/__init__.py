"""The front end: walks a tray, runs the proved programs, writes the sheet and the page. Nothing here judges a bundle."""

VERSION = "0.5.0"  # that of include/dezhakom.h
