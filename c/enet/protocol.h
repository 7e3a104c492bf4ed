/* The protocol's numbers, and its commands as they stand on the wire, each number in the network's byte order. */
#ifndef GOFNJERTA_ENET_PROTOCOL_H
#define GOFNJERTA_ENET_PROTOCOL_H
#include "types.h"

enum { ENET_PROTOCOL_MINIMUM_MTU = 576, ENET_PROTOCOL_MAXIMUM_MTU = 4096, ENET_PROTOCOL_MAXIMUM_PACKET_COMMANDS = 32,
       ENET_PROTOCOL_MINIMUM_WINDOW_SIZE = 4096, ENET_PROTOCOL_MAXIMUM_WINDOW_SIZE = 65536, ENET_PROTOCOL_MINIMUM_CHANNEL_COUNT = 1,
       ENET_PROTOCOL_MAXIMUM_CHANNEL_COUNT = 255, ENET_PROTOCOL_MAXIMUM_PEER_ID = 0xFFF,
       ENET_PROTOCOL_MAXIMUM_FRAGMENT_COUNT = 16384 /* libenet: 1,048,576 */ };

typedef enum _ENetProtocolCommand {
    ENET_PROTOCOL_COMMAND_NONE, ENET_PROTOCOL_COMMAND_ACKNOWLEDGE, ENET_PROTOCOL_COMMAND_CONNECT, ENET_PROTOCOL_COMMAND_VERIFY_CONNECT,
    ENET_PROTOCOL_COMMAND_DISCONNECT, ENET_PROTOCOL_COMMAND_PING, ENET_PROTOCOL_COMMAND_SEND_RELIABLE, ENET_PROTOCOL_COMMAND_SEND_UNRELIABLE,
    ENET_PROTOCOL_COMMAND_SEND_FRAGMENT, ENET_PROTOCOL_COMMAND_SEND_UNSEQUENCED, ENET_PROTOCOL_COMMAND_BANDWIDTH_LIMIT,
    ENET_PROTOCOL_COMMAND_THROTTLE_CONFIGURE, ENET_PROTOCOL_COMMAND_SEND_UNRELIABLE_FRAGMENT, ENET_PROTOCOL_COMMAND_COUNT,
    ENET_PROTOCOL_COMMAND_MASK = 0x0F
} ENetProtocolCommand;

typedef enum _ENetProtocolFlag {
    ENET_PROTOCOL_COMMAND_FLAG_ACKNOWLEDGE = 0x80, ENET_PROTOCOL_COMMAND_FLAG_UNSEQUENCED = 0x40,
    ENET_PROTOCOL_HEADER_FLAG_COMPRESSED = 0x4000, ENET_PROTOCOL_HEADER_FLAG_SENT_TIME = 0x8000, ENET_PROTOCOL_HEADER_FLAG_MASK = 0xC000,
    ENET_PROTOCOL_HEADER_SESSION_MASK = 0x3000, ENET_PROTOCOL_HEADER_SESSION_SHIFT = 12
} ENetProtocolFlag;

#define ENET_PACKED __attribute__((packed))

typedef struct _ENetProtocolHeader {
    enet_uint16 peerID, sentTime;
} ENET_PACKED ENetProtocolHeader;
typedef struct _ENetProtocolCommandHeader {
    enet_uint8 command, channelID;
    enet_uint16 reliableSequenceNumber;
} ENET_PACKED ENetProtocolCommandHeader;
typedef struct _ENetProtocolAcknowledge {
    ENetProtocolCommandHeader header;
    enet_uint16 receivedReliableSequenceNumber, receivedSentTime;
} ENET_PACKED ENetProtocolAcknowledge;
typedef struct _ENetProtocolConnect {
    ENetProtocolCommandHeader header;
    enet_uint16 outgoingPeerID;
    enet_uint8 incomingSessionID, outgoingSessionID;
    enet_uint32 mtu, windowSize, channelCount, incomingBandwidth, outgoingBandwidth;
    enet_uint32 packetThrottleInterval, packetThrottleAcceleration, packetThrottleDeceleration, connectID, data;
} ENET_PACKED ENetProtocolConnect;
typedef struct _ENetProtocolVerifyConnect {
    ENetProtocolCommandHeader header;
    enet_uint16 outgoingPeerID;
    enet_uint8 incomingSessionID, outgoingSessionID;
    enet_uint32 mtu, windowSize, channelCount, incomingBandwidth, outgoingBandwidth;
    enet_uint32 packetThrottleInterval, packetThrottleAcceleration, packetThrottleDeceleration, connectID;
} ENET_PACKED ENetProtocolVerifyConnect;
typedef struct _ENetProtocolBandwidthLimit {
    ENetProtocolCommandHeader header;
    enet_uint32 incomingBandwidth, outgoingBandwidth;
} ENET_PACKED ENetProtocolBandwidthLimit;
typedef struct _ENetProtocolThrottleConfigure {
    ENetProtocolCommandHeader header;
    enet_uint32 packetThrottleInterval, packetThrottleAcceleration, packetThrottleDeceleration;
} ENET_PACKED ENetProtocolThrottleConfigure;
typedef struct _ENetProtocolDisconnect {
    ENetProtocolCommandHeader header;
    enet_uint32 data;
} ENET_PACKED ENetProtocolDisconnect;
typedef struct _ENetProtocolPing {
    ENetProtocolCommandHeader header;
} ENET_PACKED ENetProtocolPing;
typedef struct _ENetProtocolSendReliable {
    ENetProtocolCommandHeader header;
    enet_uint16 dataLength;
} ENET_PACKED ENetProtocolSendReliable;
typedef struct _ENetProtocolSendUnreliable {
    ENetProtocolCommandHeader header;
    enet_uint16 unreliableSequenceNumber, dataLength;
} ENET_PACKED ENetProtocolSendUnreliable;
typedef struct _ENetProtocolSendUnsequenced {
    ENetProtocolCommandHeader header;
    enet_uint16 unsequencedGroup, dataLength;
} ENET_PACKED ENetProtocolSendUnsequenced;
typedef struct _ENetProtocolSendFragment {
    ENetProtocolCommandHeader header;
    enet_uint16 startSequenceNumber, dataLength;
    enet_uint32 fragmentCount, fragmentNumber, totalLength, fragmentOffset;
} ENET_PACKED ENetProtocolSendFragment;

typedef union _ENetProtocol {
    ENetProtocolCommandHeader header;
    ENetProtocolAcknowledge acknowledge;
    ENetProtocolConnect connect;
    ENetProtocolVerifyConnect verifyConnect;
    ENetProtocolDisconnect disconnect;
    ENetProtocolPing ping;
    ENetProtocolSendReliable sendReliable;
    ENetProtocolSendUnreliable sendUnreliable;
    ENetProtocolSendUnsequenced sendUnsequenced;
    ENetProtocolSendFragment sendFragment;
    ENetProtocolBandwidthLimit bandwidthLimit;
    ENetProtocolThrottleConfigure throttleConfigure;
} ENET_PACKED ENetProtocol;

#endif
