% An intersection is a subset of its first set.
include('sets/sets.ax').
thf(c,conjecture,! [A: $i > $o,B: $i > $o] : ( subset @ ( inter @ A @ B ) @ A )).
