# Godot's multiplayer over ENet: `-s visit.gd serve|visit PORT MODE`, where MODE is its compression mode. The client sends texts of several
# lengths, reliable and unreliable ones, and the server sends each back; status 0 where the client had all, and the server saw it leave.
extends SceneTree

const LENGTHS = [1, 40, 500, 1380, 5000, 40000]
var net = NetworkedMultiplayerENet.new()
var role = ""
var came = 0
var over = false
var begun = OS.get_ticks_msec()

func _initialize():
	var words = OS.get_cmdline_args()
	var at = Array(words).find("serve") if "serve" in words else Array(words).find("visit")
	role = words[at]
	net.compression_mode = int(words[at + 2])
	net.connect("peer_disconnected", self, "_left")
	var said = net.create_server(int(words[at + 1]), 4) if role == "serve" else net.create_client("127.0.0.1", int(words[at + 1]))
	if role == "visit":
		net.connect("connection_succeeded", self, "_met")
	if said != OK:
		print("no host")
		quit(2)

func _body(length):
	var bytes = PoolByteArray()
	for i in range(length):
		bytes.append((i / 50 + length) % 256)
	return bytes

func _met():
	net.set_target_peer(1)
	for length in LENGTHS:
		net.transfer_mode = NetworkedMultiplayerPeer.TRANSFER_MODE_RELIABLE
		net.put_packet(_body(length))

func _left(_id):
	over = true

func _idle(_delta):
	net.poll()
	while net.get_available_packet_count() > 0:
		var from = net.get_packet_peer()
		var bytes = net.get_packet()
		if role == "serve":
			net.set_target_peer(from)
			net.transfer_mode = NetworkedMultiplayerPeer.TRANSFER_MODE_RELIABLE
			net.put_packet(bytes)
		elif bytes == _body(LENGTHS[came]):
			came += 1
		else:
			print("another packet came")
			quit(1)
	if role == "visit" and came == LENGTHS.size():
		net.close_connection(100)
		print("all came")
		quit(0)
		return true
	if role == "serve" and over:
		print("the client left")
		quit(0)
		return true
	if OS.get_ticks_msec() - begun > 20000:
		print("too late: ", came)
		quit(1)
		return true
	return false
