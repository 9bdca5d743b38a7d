"""The forms in which pictures are written: text, gcc, sarif, json and html."""
