"""Reads a message from standard input by Python's `email`, and prints the line that `jmap read` prints.

It knows the messages of bench/run alone: one text part, or a multipart/mixed of parts without names; no header field but Subject and
those of a part. So each benchmark compares the same bytes.
"""
import email
import json
import sys

PEOPLE = ("bcc", "cc", "from", "inReplyTo", "messageId", "references", "replyTo", "sender", "sentAt", "to")


def part_of(leaf, number, body):
    is_text = leaf.get_content_maintype() == "text"
    return {
        "blobId": f"b1-{number}", "charset": leaf.get_content_charset("us-ascii" if is_text else None), "cid": None, "disposition": None,
        "language": None, "location": None, "name": None, "partId": str(number), "size": len(body), "type": leaf.get_content_type(),
    }


def view_of(content):
    message = email.message_from_bytes(content)
    leaves = message.get_payload() if message.is_multipart() else [message]
    parts, texts, values = [], [], {}
    for number, leaf in enumerate(leaves, 1):
        body = leaf.get_payload(decode=True)
        part = part_of(leaf, number, body)
        parts.append(part)
        if part["type"] == "text/plain":
            texts.append(part)
            value = body.decode(part["charset"]).replace("\r\n", "\n")
            values[part["partId"]] = {"isEncodingProblem": False, "isTruncated": False, "value": value}
    attached = [part for part in parts if part not in texts]
    first = next(iter(values.values()), {"value": ""})["value"]
    structure = parts[0]
    if message.is_multipart():
        size = len(content.partition(b"\r\n\r\n")[2])
        structure = {**parts[0], "blobId": None, "charset": None, "partId": None, "size": size, "subParts": parts, "type": message.get_content_type()}
    return {
        **dict.fromkeys(PEOPLE), "attachments": attached, "bodyStructure": structure, "bodyValues": values, "hasAttachment": bool(attached),
        "htmlBody": texts, "preview": " ".join(first[:4096].split())[:256], "subject": message["subject"], "textBody": texts,
    }


content = sys.stdin.buffer.read()
if content or "--empty" in sys.argv[1:]:
    line = json.dumps(view_of(content), ensure_ascii=False, separators=(",", ":"), sort_keys=True)
    sys.stdout.buffer.write(line.encode() + b"\n")
