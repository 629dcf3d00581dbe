std = "lua53"
globals = {"golly"}
max_line_length = 140
