"""Recordings: candump logs and other files of CAN, VCD and tables, and the sensor and air files that are made from them."""
