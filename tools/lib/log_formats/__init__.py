"""Logs in their own form: what their stamps are, and what their lines or spans tell. This package is written for each Python from 3.8 on."""
