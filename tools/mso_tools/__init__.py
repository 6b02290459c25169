"""Parts of the programs in this folder: from a file to a text that `mso` reads.

Nothing here is proved. What these modules find (a tree, an order) is only a proposal: `mso` computes every boundary from the
matrix anew, and refuses what does not fit.
"""
