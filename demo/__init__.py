"""The demonstration on simulated panels."""
