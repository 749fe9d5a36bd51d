// Not in the DC part.
