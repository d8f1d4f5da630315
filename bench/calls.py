"""What protection_calls and location_calls share: each call of a database over an image, at three sizes of it, and a call on little and on
much over one image, in one run of the script."""
from timing import Program, given, medians

FEW, SIZES = 1000, (10000, 30000)
# How long the calls of a run take at least, in seconds.
LEAST = 0.1


def wanted_of(growth):
    """How many times as long a call takes over each of the larger images."""
    return " and ".join(f"{growth(entries) / growth(FEW):.3g}" for entries in SIZES)


# A call that passes the front of a chain at most, one that may walk along a whole chain, and one that looks at each block.
FRONT = "about 1"
CHAIN = f"at most {wanted_of(lambda entries: entries // 256 + 1)}, the lengths of chains"
BLOCKS = f"about {wanted_of(lambda entries: entries)}, the blocks"


def seconds(bench, database, image, call):
    """The processor time of a call over an image."""
    def made(times):
        return bench.timed(database, times, *call.split(), given=image, system=True)

    times = 16
    while made(times)() < LEAST:
        times *= 4
    none, all_ = medians(5, made(0), made(times))
    return (all_ - none) / times


def tell_calls(database, image_of, calls):
    """Prints of each call, which has its growth and its words at a number of entries, how its time grows."""
    bench = Program("server_bench")
    images = {entries: given(image_of(entries)) for entries in (FEW, *SIZES)}
    print(f"to {FEW} entries, over {SIZES[0]} and {SIZES[1]}:")
    for what, growth, call_of in calls:
        few, *many = (seconds(bench, database, image, call_of(entries)) for entries, image in images.items())
        ratios = " and ".join(f"{it / few:.2f}" for it in many)
        print(f"{database} {what}: {ratios} (wanted: {growth}), {few * 1e6:.1f} us each over {FEW}", flush=True)


def tell_growth(database, image, calls):
    """Prints of each call, which has the ratio that is wanted and its words on little and on much, how its time grows over one image."""
    bench, image = Program("server_bench"), given(image)
    for what, wanted, little, much in calls:
        few, many = (seconds(bench, database, image, call) for call in (little, much))
        print(f"{database} {what}: {many / few:.2f} (wanted: {wanted}), {few * 1e6:.1f} us each at first", flush=True)
