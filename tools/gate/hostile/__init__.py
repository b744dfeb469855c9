"""What is thrown at the built program and at the library: bad texts, bad files, little memory, bad calls. The sources in C are in hostile/."""
