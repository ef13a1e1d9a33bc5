"""The status of a running access point: a page, the same as JSON, and in the text format of Prometheus, at an
address of this machine.

Nothing of it decides on a frame, and nothing of it is proved. `server.serve(port, ask)` is what others call.
"""
