"""Pictures of rows: one scale for all panels, units at the axes, colours that can be told apart in grey too."""
