"""From any CAD model to convex pieces for `staat`. Beside the proofs: `staat` judges what is written here."""
