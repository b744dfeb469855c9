"""What the built program takes: seconds and megabytes, and steps and columns of a plain program."""
