"""The windows of the months, and the draft of a coming year."""
