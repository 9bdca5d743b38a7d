"""The tools' own tests: `python3 -m unittest discover -s tools -t tools`."""
