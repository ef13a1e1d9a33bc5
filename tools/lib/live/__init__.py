"""The bridge between the program's word `live` and a Linux machine's radio and wired ports.

It decides nothing on a frame that a network has to answer: what it leaves out is what never reaches the upper layer of
a receiver (damaged, repeated or foreign frames), or what no network's port may carry (tags of VLANs).
"""
