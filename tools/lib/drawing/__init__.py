"""Draws a run. `picture` draws all of it, `overview` a long one on one screen, and `page` puts a picture into a page of
HTML; `columns` says what stands where, and `svg` writes shapes. What happened in the run comes from `story`."""
