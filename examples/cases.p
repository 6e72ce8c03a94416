% What holds of truth and of falsity holds of all truth values.
thf(c,conjecture,! [P: $o > $o] : ( ( ( P @ $true ) & ( P @ $false ) ) => ! [X: $o] : ( P @ X ) )).
