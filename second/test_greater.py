"""Tests of greater.py: no network is missing in a greater grid, and one that is would be told."""

import sys
import unittest
from pathlib import Path

sys.dont_write_bytecode = True
sys.path.insert(0, str(Path(__file__).resolve().parent))

import exhaust
import greater


class Greater(unittest.TestCase):
    def test_fits(self):
        self.assertTrue(greater.fits_into((1, 3), (3, 2)))
        self.assertFalse(greater.fits_into((2, 3), (4, 2)) and greater.fits_into((3, 3), (4, 2)))

    def test_none_is_missing(self):
        grids = [grid for grid in exhaust.GRIDS if grid[0] * grid[1] <= 6]
        listings = {grid: exhaust.Listing(*grid) for grid in grids}
        count, lacks = greater.missing(listings)
        self.assertTrue(count > 20, count)
        self.assertEqual(lacks, [])
        del listings[2, 3].groups[next(iter(listings[1, 2].groups))]
        self.assertTrue(greater.missing(listings)[1])


if __name__ == "__main__":
    unittest.main()
