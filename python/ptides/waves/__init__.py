"""What happened in a run: its signals for waveform viewers, pandas, Perfetto, and as a timeline."""
