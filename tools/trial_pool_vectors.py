"""Prints what crates/trial_pool_vectors must print, by tools/pools.py.

    python3 tools/trial_pool_vectors.py > crates/trial_pool_vectors/stdout
"""
from trial_pool import fill, listed, random_cases, tranche_loss

for n, p, rho, *tranche in random_cases(300):
    fill(n, p, rho)
    listed("column", n, p, rho)
    tranche_loss(n, p, rho, *tranche)
