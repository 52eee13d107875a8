"""The house's own ways to give up, as wrong bodies that `tools/plants` asks the prover for.

`rt plant` knows no 90, no connection that is given up, no note that is set before its fault, and no body that is right
only under a condition. `heads` reads what a function takes and gives, `bodies` writes such bodies for it, and `trial`
asks the prover for them over built libraries. The crate stays as it is.
"""
