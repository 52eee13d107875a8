"""The website: its pages in each language, and what search engines and portals read."""
