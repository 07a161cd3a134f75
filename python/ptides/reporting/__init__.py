"""The report of a run: one page of HTML that needs nothing else.

`gather` collects what the page shows, `series` makes its data small, `page` writes it, and `command` is `ptides report`.
`signals.js` reads the data, `trends.js` draws it with dygraphs, `report.js` answers what is clicked and typed, and `report.css` is how it
looks, in light, in the dark and on paper.
"""
