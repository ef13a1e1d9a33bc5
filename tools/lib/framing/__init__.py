"""What tools/frame says of a frame, and the words by which it writes one. `fields` and `in_words` say what octets mean,
`writing` makes octets, and `explaining.unread` gives the reasons."""
