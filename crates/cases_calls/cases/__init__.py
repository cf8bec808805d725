"""The cases of the script, by group. Each states the number that its call is to answer, and the model is held to it."""
