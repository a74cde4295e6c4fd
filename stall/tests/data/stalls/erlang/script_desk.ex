defmodule Desk do
  @moduledoc "Two desks ask each other, without a limit. A script opens them, and sleeps. With `late` it frees one in the end."
  use GenServer

  def open do
    for {name, other} <- [left: :right, right: :left], do: {:ok, _} = GenServer.start(Desk, other, name: name)
    for name <- [:left, :right], do: send(name, :begin)
  end

  def open_late do
    open()
    answer = fn -> GenServer.stop(:left) end
    Process.sleep(600_000)
    answer.()
  end

  def init(other), do: {:ok, other}

  def handle_info(:begin, other) do
    Process.sleep(200)
    {:noreply, GenServer.call(other, :ask, :infinity)}
  end

  def handle_call(:ask, _from, other), do: {:reply, other, other}
end
