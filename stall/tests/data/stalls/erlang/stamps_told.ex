# The text of a stamp, which fails after ten minutes.
defmodule Stamps.Stamp do
  defstruct [:number]
end

defimpl Inspect, for: Stamps.Stamp do
  def inspect(%{number: number}, _) do
    if number == 600, do: raise("no number for #{number}")
    "stamp #{number}"
  end
end
