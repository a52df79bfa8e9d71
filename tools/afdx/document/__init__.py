"""Interface control documents: workbooks and CSV become the rows of a description, and results go back into them."""
