"""Times the proved roster (crates/paced) beside a dispatcher in plain Rust (dispatch.rs).

Needs rt and rustc. Both programs read the same lines, and must give the same answers.
"""
from jobs import ROSTERS
from programs import Pair


def main():
    pair = Pair("paced", "dispatch")
    print(f"{'plan':<10}{'way':<10}{'calls':>10}{'proved, ns each':>18}{'plain, ns each':>18}{'ratio':>8}")
    for plan, way, calls, lines in ROSTERS:
        proved, plain = (seconds * 1e9 / (calls * lines) for seconds in pair.seconds(f"{plan} {way} {calls}\n" * lines))
        print(f"{plan:<10}{way:<10}{calls * lines:>10}{proved:>18.1f}{plain:>18.1f}{proved / plain:>8.2f}")


if __name__ == "__main__":
    main()
