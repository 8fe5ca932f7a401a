"""A simulated panel, what it is given (settings files, bitmaps), and the way to make calls on the driver from Python."""
