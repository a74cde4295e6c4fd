# A shop in Elixir. A cart reserves its items in a task, the stock asks the prices for a discount, and the function that
# the agent of the prices runs for that asks the cart.

defmodule Shop do
  # Opens the shop. In a `stuck` one the discount depends on the cart, in a `slow` one on a partner outside.
  def open(day) do
    {:ok, _} = Application.ensure_all_started(:elixir)
    spawn(Shop, :run, [day, self()])
    receive do: (:open -> :ok)
  end

  def run(day, caller) do
    {:ok, _} = Supervisor.start_link([
      {Registry, keys: :unique, name: Shop.Registry},
      {Task.Supervisor, name: Shop.Tasks},
      {DynamicSupervisor, name: Shop.Carts},
      %{id: Shop.Prices, start: {Shop.Prices, :start_link, [day]}},
      Shop.Stock
    ], strategy: :one_for_one, name: Shop.Supervisor)
    {:ok, _} = DynamicSupervisor.start_child(Shop.Carts, {Shop.Cart, 7})
    client(:checkout, fn -> Shop.Cart.checkout(7) end)
    Process.sleep(300)
    client(:visitor, fn -> DynamicSupervisor.start_child(Shop.Carts, {Shop.Cart, 8}) end)
    client(:report, fn -> Enum.to_list(Task.async_stream([7], &Shop.Cart.items/1, timeout: :infinity)) end)
    client(:guest, fn -> GenServer.call(Shop.Stock, {:left, :lamp}, 60_000_000) end)
    Process.sleep(300)
    client(:admin, fn -> DynamicSupervisor.which_children(Shop.Carts) end)
    send(caller, :open)
    Process.sleep(:infinity)
    :closed
  end

  defp client(name, work) do
    spawn(fn ->
      Process.register(self(), name)
      {:done, work.()}
    end)
  end
end

defmodule Shop.Cart do
  use GenServer

  def start_link(id), do: GenServer.start_link(__MODULE__, id, name: name(id))
  def checkout(id), do: GenServer.call(name(id), :checkout, :infinity)
  def items(id), do: GenServer.call(name(id), :items, :infinity)
  defp name(id), do: {:via, Registry, {Shop.Registry, id}}

  # A new cart asks whether there are lamps.
  def init(7), do: {:ok, {7, [:lamp]}}
  def init(id), do: {:ok, {id, [{:lamps, GenServer.call(Shop.Stock, {:left, :lamp}, :infinity)}]}}

  def handle_call(:items, _from, {id, items}), do: {:reply, items, {id, items}}

  def handle_call(:checkout, _from, {id, items}) do
    task = Task.Supervisor.async(Shop.Tasks, Shop.Stock, :reserve, [id, items])
    {:reply, Task.await(task, :infinity), {id, items}}
  end
end

defmodule Shop.Stock do
  use GenServer

  def start_link(_), do: GenServer.start_link(__MODULE__, [], name: __MODULE__)
  def reserve(id, items), do: GenServer.call(__MODULE__, {:reserve, id, items}, :infinity)
  def init(items), do: {:ok, items}

  def handle_call({:left, _item}, _from, items), do: {:reply, 3, items}

  def handle_call({:reserve, id, wanted}, _from, items) do
    {:reply, {:reserved, wanted, Shop.Prices.discount(id)}, wanted ++ items}
  end
end

defmodule Shop.Prices do
  def start_link(day), do: Agent.start_link(fn -> day end, name: __MODULE__)
  def discount(id), do: Agent.get(__MODULE__, Shop.Prices, :discount, [id], :infinity)

  # Runs in the agent.
  def discount(:stuck, id), do: length(Shop.Cart.items(id))

  def discount(:slow, _id) do
    receive do
      {:partner, discount} -> discount
    after
      600_000 -> 0
    end
  end
end
