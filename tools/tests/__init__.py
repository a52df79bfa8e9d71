"""The tests of the tools and of the built programs: `python3 -m unittest discover tools -p 'test_rows.py'`."""
