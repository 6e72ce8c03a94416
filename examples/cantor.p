% Cantor's theorem: no function from things to sets of things reaches all of these.
thf(c,conjecture,~ ( ? [F: $i > $i > $o] : ( ! [Y: $i > $o] : ( ? [X: $i] : ( ( F @ X ) = Y ) ) ) )).
