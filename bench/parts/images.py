"""Random images that are accepted, of both versions, as the second program writes them: images.py COUNT FOLDER [SEED] writes them to FOLDER, and their names to standard
output.
"""

import pathlib
import random
import subprocess
import sys

BENCH = pathlib.Path(__file__).parent.parent
sys.path.insert(0, str(BENCH / "writing"))
import random_parts
import record

WRITE = BENCH.parent / "target" / "bench" / "write"


def main(count, folder, seed=1):
    folder, dice = pathlib.Path(folder), random.Random(int(seed))
    folder.mkdir()
    found = [random_parts.accepted(dice) for _ in range(int(count))]
    rooms, versions = [record.length(parts) for parts in found], [dice.choice(record.VERSIONS) for _ in found]
    records = folder / "records.raw"
    records.write_bytes(b"".join(map(record.packed, found, rooms, versions)))
    answers = subprocess.run([WRITE, records], stdout=subprocess.PIPE, check=True).stdout
    for place, answer in enumerate(record.answers(answers, rooms)):
        image = folder / f"{place}.image"
        image.write_bytes(answer.buffer)
        print(image)


if __name__ == "__main__":
    if not 3 <= len(sys.argv) <= 4:
        sys.exit(__doc__)
    main(*sys.argv[1:])
