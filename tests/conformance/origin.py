"""Reads requests and writes responses as the origin server of the cases (README.md, "The origin")."""
from cases import has, values


def head_of(pipe):
    """Returns the lines of a head, without their ends, or None at the end of the input."""
    lines = []
    while line := pipe.readline():
        if line == b"\r\n":
            return [line.decode("latin-1") for line in lines]
        lines.append(line[:-2])
    return None


def received_request(pipe):
    """Returns the next request on a pipe, or None at its end."""
    lines = head_of(pipe)
    if lines is None:
        return None
    method, target, _ = lines[0].split(" ")
    headers = [line.split(": ", 1) for line in lines[1:]]
    if "chunked" in [value.lower() for value in values(headers, "transfer-encoding")]:
        body = chunks_of(pipe)
    else:
        body = pipe.read(int((values(headers, "content-length") or ["0"])[0]))
    return None if body is None else {"method": method, "target": target, "headers": headers, "body": body}


def chunks_of(pipe):
    """Returns a body in chunks, after its trailer, or None if it is cut off."""
    body = b""
    while line := pipe.readline():
        size = int(line.split(b";")[0], 16)
        if size == 0:
            return body if head_of(pipe) is not None else None
        body += pipe.read(size)
        pipe.readline()
    return None


def chosen(answer, headers):
    """Returns the origin server's answer to a request with these headers (README.md, "The origin")."""
    tags, date = ", ".join(values(headers, "if-none-match")), ", ".join(values(headers, "if-modified-since"))
    rule = answer.get("conditional")
    if rule and (rule["force"] and (tags or date)
                 or tags and (tags == "*" or rule["etag"] and rule["etag"] in tags)
                 or not tags and date and date == rule["date"]):
        return rule
    rule, if_range = answer.get("range"), ", ".join(values(headers, "if-range"))
    if rule and has(headers, "range") and (not if_range or rule["etag"] and rule["etag"] in if_range):
        return rule
    return answer


def raw_response(answer, method):
    """Returns an answer as it is sent. A body of unknown length is sent in chunks."""
    body = bytes.fromhex(answer["body_hex"])
    headers = [f"{name}: {value}" for name, value in answer["headers"] if name.lower() != "transfer-encoding"]
    if answer["status"] not in (204, 304) and not has(answer["headers"], "content-length"):
        headers.append("Transfer-Encoding: chunked")
        body = b"%x\r\n%b\r\n0\r\n\r\n" % (len(body), body) if body else b"0\r\n\r\n"
    if method == "HEAD" or answer["status"] in (204, 304):
        body = b""
    head = "\r\n".join([f"HTTP/1.1 {answer['status']} Told", *headers, "", ""])
    return head.encode("latin-1") + body
