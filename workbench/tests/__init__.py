"""Tests of the workbench: `quick` takes a minute, `long` tries models of packages for five, `tried` for hours.

/usr/bin/python3 -m unittest discover -t . workbench/tests/quick
/usr/bin/python3 -m unittest discover -t . workbench/tests/long
/usr/bin/python3 -m workbench.tests.tried

Where there is a built planner (bin/staat, or that of the variable STAAT), `staat look` judges what is written. Tests
for which a package is missing are passed over.
"""
