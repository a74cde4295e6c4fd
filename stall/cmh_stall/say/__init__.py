"""What tells an answer: functions of its tree (`answer.py`) alone, which ask the model nothing."""
