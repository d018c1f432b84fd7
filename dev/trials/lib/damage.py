"""Damage of files: drawn, and recordings within recordings."""

import random

from frames import FRAMES, body_of, end_packet, frames_packet, packet_of, program_packet


def damaged(draw: random.Random, data: bytes) -> bytes:
    """A file with some bytes changed, taken out, put in twice or cut off."""
    made = bytearray(data)
    for _ in range(draw.randrange(1, 4)):
        if not made:
            break
        near = len(made) if draw.random() < 0.5 else min(200, len(made))
        at, kind = draw.randrange(near), draw.randrange(5)
        if kind == 0:
            made[at] = draw.randrange(256)
        elif kind == 1:
            made[at] ^= 1 << draw.randrange(8)
        elif kind == 2:
            del made[at : at + draw.randrange(1, 40)]
        elif kind == 3:
            made[at:at] = made[at : at + draw.randrange(1, 200)]
        else:
            del made[max(at, 1) :]
    return bytes(made)


def damaged_sample(draw: random.Random, turn: int, samples: list[bytes]) -> bytes:
    data = bytearray(draw.choice(samples) if turn % 3 else draw.choice(samples[:2]) * draw.randint(2, 4))
    for _ in range(draw.randint(1, 3)):
        at = draw.randrange(len(data))
        data[at : at + draw.choice([0, 1, 5])] = draw.randbytes(draw.choice([0, 1, 3, 30]))
    return bytes(data)


def nested(is_summed: bool) -> list[bytes]:
    """The packets of a recording whose frames hold whole recordings."""
    inner = program_packet(1, 0, is_summed=is_summed) + b"".join(
        frames_packet([(7, 0, bytes(60))], at, 7, is_summed) for at in range(3)
    )
    frame = bytes.fromhex("020000000002 020000000001 88b5") + inner
    bodies = [body_of([(at, 0, frame + bytes(4))] * 2) for at in range(5)]
    packets = [packet_of(1, it, at, FRAMES, at, is_summed) for at, it in enumerate(bodies)]
    return [program_packet(1, 0, is_summed=is_summed), *packets, end_packet(1, 10, is_summed=is_summed)]
