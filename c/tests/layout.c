/* Prints where the fields of libenet's public structures lie, and their sizes: scripts/check/check-c.sh compares what it prints when it is
 * compiled against c/enet/enet.h with what it prints when it is compiled against the reference library's header. */
#include <enet/enet.h>
#include <stddef.h>
#include <stdio.h>

#define SIZE(T) printf(#T " %zu\n", sizeof(T))
#define AT(T, f) printf(#T "." #f " %zu %zu\n", offsetof(T, f), sizeof(((T *)0)->f))

int main(void) {
    SIZE(ENetAddress), SIZE(ENetPacket), SIZE(ENetPeer), SIZE(ENetHost), SIZE(ENetEvent), SIZE(ENetCompressor), SIZE(ENetBuffer), SIZE(ENetCallbacks);
    AT(ENetPacket, referenceCount), AT(ENetPacket, flags), AT(ENetPacket, data), AT(ENetPacket, dataLength), AT(ENetPacket, freeCallback), AT(ENetPacket, userData);
    AT(ENetEvent, type), AT(ENetEvent, peer), AT(ENetEvent, channelID), AT(ENetEvent, data), AT(ENetEvent, packet);
    AT(ENetPeer, host), AT(ENetPeer, outgoingPeerID), AT(ENetPeer, incomingPeerID), AT(ENetPeer, connectID), AT(ENetPeer, outgoingSessionID);
    AT(ENetPeer, address), AT(ENetPeer, data), AT(ENetPeer, state), AT(ENetPeer, channelCount), AT(ENetPeer, incomingBandwidth), AT(ENetPeer, packetLossEpoch);
    AT(ENetPeer, packetThrottle), AT(ENetPeer, packetThrottleInterval), AT(ENetPeer, pingInterval), AT(ENetPeer, timeoutMaximum), AT(ENetPeer, lastRoundTripTime);
    AT(ENetPeer, roundTripTime), AT(ENetPeer, roundTripTimeVariance), AT(ENetPeer, mtu), AT(ENetPeer, windowSize), AT(ENetPeer, reliableDataInTransit);
    AT(ENetPeer, eventData), AT(ENetPeer, totalWaitingData), AT(ENetPeer, dispatchList), AT(ENetPeer, outgoingReliableSequenceNumber);
    AT(ENetPeer, acknowledgements), AT(ENetPeer, sentReliableCommands), AT(ENetPeer, sentUnreliableCommands), AT(ENetPeer, outgoingCommands);
    AT(ENetPeer, dispatchedCommands), AT(ENetPeer, flags), AT(ENetPeer, incomingUnsequencedGroup), AT(ENetPeer, unsequencedWindow);
    AT(ENetPeer, packetsLost), AT(ENetPeer, packetLoss), AT(ENetPeer, packetLossVariance);
    SIZE(ENetProtocol), SIZE(ENetProtocolHeader), SIZE(ENetProtocolConnect), SIZE(ENetProtocolVerifyConnect), SIZE(ENetProtocolSendFragment);
    SIZE(ENetProtocolAcknowledge), SIZE(ENetProtocolThrottleConfigure), SIZE(ENetOutgoingCommand), SIZE(ENetIncomingCommand), SIZE(ENetList);
    SIZE(ENetAcknowledgement), AT(ENetAcknowledgement, command);
    printf("%d %d %d %d %d %d\n", ENET_PEER_UNSEQUENCED_WINDOWS, ENET_PEER_FREE_UNSEQUENCED_WINDOWS, ENET_PEER_RELIABLE_WINDOWS,
           ENET_PEER_RELIABLE_WINDOW_SIZE, ENET_PEER_FREE_RELIABLE_WINDOWS, ENET_PEER_FLAG_NEEDS_DISPATCH);
    AT(ENetProtocolConnect, mtu), AT(ENetProtocolConnect, data), AT(ENetProtocolSendFragment, totalLength);
    AT(ENetOutgoingCommand, sendAttempts), AT(ENetOutgoingCommand, packet), AT(ENetIncomingCommand, packet);
    AT(ENetHost, dispatchQueue), AT(ENetHost, continueSending), AT(ENetHost, commands), AT(ENetHost, buffers), AT(ENetHost, bufferCount);
    AT(ENetHost, socket), AT(ENetHost, address), AT(ENetHost, incomingBandwidth), AT(ENetHost, mtu), AT(ENetHost, randomSeed), AT(ENetHost, peers);
    AT(ENetHost, peerCount), AT(ENetHost, channelLimit), AT(ENetHost, serviceTime), AT(ENetHost, checksum), AT(ENetHost, compressor), AT(ENetHost, packetData);
    AT(ENetHost, receivedAddress), AT(ENetHost, receivedData), AT(ENetHost, receivedDataLength), AT(ENetHost, totalSentData), AT(ENetHost, totalReceivedPackets);
    AT(ENetHost, intercept), AT(ENetHost, connectedPeers), AT(ENetHost, duplicatePeers), AT(ENetHost, maximumPacketSize), AT(ENetHost, maximumWaitingData);
    return 0;
}
