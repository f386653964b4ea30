"""The colours of pictures, one for each host or crate in turn."""

INKS = ("#1f5fa8", "#b3541e", "#2f7d4f", "#7a4aa0", "#a8324e", "#4d6b7a", "#8a6d1a", "#5a5a5a")
