"""The bytes of a filing: a call as a field (tag, length, content), and the fields of a run of bytes."""

from typing import NamedTuple, Optional

from front.calls import BY_TAG, Call

HEAD = 3


class Field(NamedTuple):
    """A field as it stands in a filing, counted from 1; where the bytes are no call, they go to the filing's end."""

    number: int
    offset: int
    data: bytes
    call: Optional[Call]


def encode(call):
    """The bytes of a call."""
    content = b"".join(
        value.to_bytes(place.bits // 8, "big", signed=place.signed) for place, value in zip(call.kind.places, call.values)
    )
    return bytes([call.kind.tag]) + len(content).to_bytes(2, "big") + content


def fields_of(data):
    """The fields of a filing, up to the first whose bytes are no call."""
    fields, offset = [], 0
    while offset < len(data):
        field = _field_at(data, offset, len(fields) + 1)
        fields.append(field)
        offset += len(field.data)
    return fields


def _field_at(data, offset, number):
    length = int.from_bytes(data[offset + 1 : offset + HEAD], "big")
    whole = data[offset : offset + HEAD + length]
    kind = BY_TAG.get(whole[0])
    if kind is None or length != kind.length or len(whole) < HEAD + length:
        return Field(number, offset, data[offset:], None)
    return Field(number, offset, whole, _decoded(kind, whole[HEAD:]))


def _decoded(kind, content):
    values, start = [], 0
    for place in kind.places:
        end = start + place.bits // 8
        values.append(int.from_bytes(content[start:end], "big", signed=place.signed))
        start = end
    return Call(kind, tuple(values))
