"""What tools/wcet is made of: it drives `jop`, and draws what that says. Not proved: a tool."""
