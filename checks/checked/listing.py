"""The lines of a listing."""


def line_of(item):
    if item[0] != "tx":
        return " ".join(str(word) for word in item)
    port, address, direction, end, word = item[1:]
    line = f"{port} {address:x} {direction} {end}"
    return line + (f" {word:08x}" if end in ("ok", "bad") else f" {word}" if end == "none" else "")
