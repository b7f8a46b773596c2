# SPDX-License-Identifier: MIT OR Apache-2.0
"""Draws traces: who reaches which page of RAM, as an SVG or as a page for a browser, from what the program prints."""
