"""A model of circuits as rows on carry chains, which bench/rows measures beside texts by hand."""
