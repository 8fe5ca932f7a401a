"""A season of updates with the mistakes that trainees make."""
